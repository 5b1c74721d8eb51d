<?xml version="1.0" encoding="UTF-8"?>
<!DOCTYPE AdapterType SYSTEM "http://www.holobloc.com/xml/LibraryElement.dtd">
<AdapterType Name="Drive" Comment="Between a control and a motor">
  <Identification Standard="61499-1"/>
  <VersionInfo Organization="Parcel works" Version="1.0" Author="H. Weber" Date="2014-03-12"/>
  <InterfaceList>
    <EventInputs>
      <Event Name="STARTED" Type="Event" Comment="The motor turns, or has stopped"/>
    </EventInputs>
    <EventOutputs>
      <Event Name="RUN" Type="Event" Comment="Start"><With Var="SPEED"/></Event>
      <Event Name="HALT" Type="Event" Comment="Stop"/>
    </EventOutputs>
    <InputVars/>
    <OutputVars>
      <VarDeclaration Name="SPEED" Type="INT" Comment="Turns in a minute"/>
    </OutputVars>
  </InterfaceList>
  <Service LeftInterface="SOCKET" RightInterface="PLUG">
    <ServiceSequence Name="start">
      <ServiceTransaction>
        <InputPrimitive Event="RUN" Interface="PLUG" Parameters="SPEED"/>
        <OutputPrimitive Event="RUN" Interface="SOCKET" Parameters="SPEED"/>
      </ServiceTransaction>
    </ServiceSequence>
  </Service>
</AdapterType>
